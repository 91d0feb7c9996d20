# Turns errors.list into a C header (form=header) or into the texts of its errors (form=source).
BEGIN {
    print "/* Made by errors.awk from errors.list. */"
    if (form == "header")
        print "#ifndef INIFILE_ERRORS_H\n#define INIFILE_ERRORS_H\n\nenum ini_error {"
    else
        print "#include \"inifile.h\"\n\nconst char *ini_error_text(enum ini_error error)\n{\n    switch (error) {"
}

/^[A-Z]/ {
    name = $1
    sub(/^[A-Z0-9_]+ +/, "")
    gsub(/"/, "\\\"")
    if (form == "header")
        print "    INI_" name ","
    else
        print "    case INI_" name ":\n        return \"" $0 "\";"
}

END {
    if (form == "header")
        print "};\n\n#endif"
    else
        print "    }\n    return \"unknown error\";\n}"
}
