"""Lists what to write in place of what is left out: the tables of docs/PORTING.md, word for word."""
from __future__ import annotations

import re

# The rows of each table: what is left out, and what to write in its place.
TABLES: dict[str, list[tuple[str, str]]] = {
    'Functions': [
        ('`subproject`, wraps, `fallback:`',
         "install the other project first, and write `dependency('x')`: `meson machine-file` asks `pkg-config` for it. For one "
         "that may be missing: `not is_variable('meson') ? subproject('x', required: false) : dependency('', required: false)`"),
        ("`import('pkgconfig')`",
         "a template `NAME.pc.in` and `configure_file(.., install_dir: get_option('libdir') / 'pkgconfig')`, as in "
         '`examples/inifile`; or [one template for all](#one-template-for-all-pc-files)'),
        ("`import('fs')`, other modules",
         "the names as texts, and an option for what has to be computed. `fs.name(x)` is `x.split('/')[-1]`; `fs.copyfile` is a "
         "`custom_target` with `cp`. A module that only an option needs goes inside `if not is_variable('meson')`"),
        ("`import('python').find_installation()`",
         "`find_program('python3')`, which has `found`, `path` and `full_path`; an option for anything else that the project "
         'asks of it'),
        ('`i18n.gettext`',
         'a `custom_target` with `msgfmt` for each language, each in a folder of its own, since the name of each output is that '
         'of the package'),
        ('`gnome.mkenums`, `gnome.mkenums_simple`, `gnome.genmarshal`, `gnome.compile_resources`',
         'a `custom_target` with `glib-mkenums`, `glib-genmarshal` or `glib-compile-resources` for each output, as `meson port` '
         'writes it'),
        ('`i18n.merge_file`',
         'a `custom_target` with `msgfmt --template`'),
        ('`run_command`',
         'for a value that is needed while configuring: an option, which the machine file sets in `[project options]`; for one '
         'that is needed while building: a `custom_target`'),
        ('`vcs_tag`',
         '`configure_file` with its fallback; or an option; or a `custom_target` with `capture: true`, which runs again when '
         'its inputs change, not at each commit'),
        ('`generator`',
         'a `foreach` with a `custom_target` for each input; a path outside of the project is an argument of the command, and '
         'not in `input:`'),
        ('`run_target`, `alias_target`',
         '`custom_target(NAME, output: NAME, build_by_default: false, ..)`, which Ninja builds by that name; or a script'),
        ('`benchmark`',
         'a `test` of the suite `benchmark`, which `meson test` runs if the suite or the test is named: `meson test --suite '
         'benchmark`'),
        ('`environment`',
         "a dictionary or texts `NAME=VALUE` in `env:`; `env.set('A', 'b')` is `env += {'A': 'b'}`; for `append` and `prepend` "
         'a script that sets the variable'),
        ('`install_subdir`',
         '`install_data` or `install_headers` with the names of the files'),
        ('`install_emptydir`, `install_symlink`',
         'a step of the package after `install`; to keep the call only for the real Meson, put it inside `if not '
         "is_variable('meson')`"),
        ('`summary`, `debug`',
         "`message`; for values that it can't print, keep the call inside `if not is_variable('meson')`"),
        ('`both_libraries`, `default_library=both`',
         "`shared_library` and `static_library` with the same name and sources; for a project's default `meson port --also "
         "both-by-default` writes them"),
        ('`shared_module`',
         '`shared_library`'),
        ('`build_target`',
         'the function of that kind of target'),
        ('`add_languages`',
         "nothing: only C is built. As a condition, write `not is_variable('meson') and add_languages('cpp')`. A language of "
         "`project` in which no source is written goes inside `if not is_variable('meson')`"),
        ('`add_global_arguments`, `add_global_link_arguments`',
         '`add_project_arguments`, `add_project_link_arguments`'),
        ('`add_test_setup`',
         'the arguments of `meson test`'),
    ],
    'Methods': [
        ('`compiles`, `links`',
         'a check that means the same: `has_function`, `has_type`, `has_member`, `has_header_symbol`; or [the same source '
         'before a name of its own](#a-source-that-has-to-compile-or-to-link)'),
        ('`run` of a compiler',
         'an option'),
        ('`has_function_attribute`, `has_define`',
         '`has_type` with [a source before a name of its own](#a-source-that-has-to-compile-or-to-link)'),
        ('`has_multi_arguments`, `has_members`',
         '`has_argument`, `has_member` for each, joined by `and`'),
        ('`get_argument_syntax`',
         "`get_id`, as `cc.get_id() in ['msvc', 'clang-cl']`"),
        ('`get_define`, `compute_int`',
         "`sizeof`, `alignment`, or an option; `get_define` compared with `''` is `has_type`, as for `has_define`; a number "
         "that isn't negative is `sizeof('char [NUMBER]')`, which `meson port --also numbers` writes"),
        ('`preprocess`',
         'a `custom_target`'),
        ('`first_supported_argument`, `get_supported_link_arguments`',
         '`get_supported_arguments`, and `has_link_argument` in an `if`'),
        ('`get_variable`, `get_pkgconfig_variable` of a dependency',
         "an option; for a program's path, its name in `find_program`"),
        ('`type_name` of a dependency',
         '`found`, or a text'),
        ('`require`, `disable_if`, `enable_if`, `disable_auto_if`, `enable_auto_if` of a feature option',
         "`x = get_option('f')`, and `x = get_option('feature_off')` in an `if`: a feature option of the project that is always "
         'disabled'),
        ('`partial_dependency`, `as_system`',
         'the dependency itself'),
        ('`extract_objects`, `extract_all_objects`',
         'a static library that both targets link; for all objects of a target, `meson port --also objects` writes it, or the sources '
         'if a target has nothing else'),
        ('`meson.add_install_script`, `add_postconf_script`, `add_dist_script`',
         "a step of the package; to keep the call only for the real Meson, put it inside `if not is_variable('meson')`"),
        ('`meson.override_dependency`, `override_find_program`',
         'nothing: there are no subprojects; to keep the call, put it inside `if meson.is_subproject()`'),
        ('`meson.can_run_host_binaries`',
         '`not meson.is_cross_build()`'),
        ('`both_libraries(..).get_static_lib()`',
         'the static library itself'),
    ],
    'Keywords': [
        ('`kwargs:`',
         "the keywords themselves, as `version: words['version']`; for a key that may be missing, `timeout: "
         "words.get('timeout', 30)`"),
        ('`native:` of targets, `link_depends:`, `link_language:`, `vs_module_defs:`, `darwin_versions:`, `extra_files:`, '
         '`install_tag:`',
         'nothing'),
        ('`variables:` of `declare_dependency`, `fallback:` and `default_options:` of `dependency`, `version:` of `find_program`',
         'nothing'),
        ("`gnu_symbol_visibility: 'hidden'`",
         "`c_args: cc.get_supported_arguments('-fvisibility=hidden')`"),
        ('`link_whole:`',
         "the sources of that library in each target that links it, as `meson port` writes it: `shared_library('x', 'x.c', "
         "sources: ['lib/a.c'])`; if the library is compiled with other arguments, `link_with:` and the names that have to be "
         "there: `link_args: '-Wl,-u,plugin_init'`"),
        ('`override_options:`',
         '`c_args:` and `link_args:` of the target'),
        ('`export_dynamic: true`',
         "`link_args: '-rdynamic'`"),
        ('`implicit_include_directories: false`, `pic:`, `pie:`',
         'nothing: libraries are always compiled with `-fPIC`'),
        ('`install_rpath:`, `build_rpath:`',
         "`link_args: '-Wl,-rpath,..'`"),
        ('`install_mode:`',
         'a step of the package'),
        ('`install:` of `configure_file`',
         "only `install_dir:`; two calls in an `if` if the file isn't always installed"),
        ('`workdir:` of `test` (taken, without effect)',
         "`test(NAME, find_program('env'), args: ['-C', FOLDER, program, ..])`"),
        ("`language: ['c', 'cpp']`",
         "`language: 'c'`"),
        ('`configure_file(command: ..)`',
         'a `custom_target`, which each target that includes the file has among its sources'),
        ('`configure_file(copy: true)`',
         '`configuration: {}`, if the file has no `@name@`, no `#mesondefine` and no exec bit; otherwise a `custom_target` with '
         '`cp`, `build_by_default: true`'),
        ("`configure_file(format: 'cmake')`",
         'a template with `@name@` and `#mesondefine`'),
        ('`env:` of `custom_target`',
         "arguments of `env`: `command: ['env', 'A=b', ..]`"),
        ('`feed: true` of `custom_target`',
         '`command: [\'sh\', \'-c\', \'exec "$@" < "$0"\', \'@INPUT@\', program, ..]`'),
        ('`build_always_stale:` of `custom_target`',
         'a script that does it'),
        ('`console:` of `custom_target`, `priority:` of `test`',
         'nothing'),
        ('`protocol:` of `test`',
         'a program that ends with 0, 77 (skipped) or another status'),
        ('`deprecated:` of `option`',
         'the option without it'),
    ],
    'Options': [
        ("`get_option('libexecdir')`, `localedir`, `sbindir`, `localstatedir` and other folders",
         'an option of the project with another name, as `libexec_dir`: the real Meson reserves the first names'),
        ("`get_option('b_ndebug')` and others that begin with `b_`",
         "their value; `(not is_variable('meson') ? get_option('b_ndebug') : 'false')` still asks the real Meson"),
        ('several standards in `c_std=gnu99,c99`',
         'the first that is taken here'),
    ],
}


def plain(text: str) -> str:
    """Returns a text of the document without what makes it a link."""
    return re.sub(r"\[([^]]*)\]\([^)]*\)", r"\1", text)


def instead_of(table: str, name: str) -> str:
    """Returns what the document writes in place of a function, a method, a keyword or an option; empty if it has no row."""
    for left_out, instead in TABLES[table]:
        spans = re.findall(r"`([^`]*)`", left_out) + ([name] if re.search(rf"(?<![\w`]){re.escape(name)}(?![\w`])", left_out) else [])
        if any(re.search(rf"(?<!\w){re.escape(name)}(?!\w)", it) for it in spans):
            return plain(instead)
    return ""


def in_its_place(table: str, name: str, short: str = "") -> str:
    """Returns what the document says of a name, else the short text, as a line; empty if there is neither."""
    text = instead_of(table, name) or short
    return f"write in its place: {text}" if text else ""
