# The hook of Nix for packages that are built with hawkottoman-meson. A derivation with the command among its nativeBuildInputs gets these
# phases, unless it has its own. `hawkottomanFlags` has further options, as `-Dname=value`; `hawkottomanFolder` is the build directory.

hawkottomanConfigurePhase() {
    runHook preConfigure
    local folder=${hawkottomanFolder:-build}
    local words=(-Dprefix="$prefix" -Dbuildtype=plain ${hawkottomanFlags-} "${hawkottomanFlagsArray[@]}")
    mkdir -p "$folder"
    hawkottoman-meson machine-file "${words[@]}" >"$folder/machine.ini"
    hawkottoman-meson setup --native-file "$folder/machine.ini" "${words[@]}" "$folder"
    runHook postConfigure
}

hawkottomanBuildPhase() {
    runHook preBuild
    hawkottoman-meson compile -C "${hawkottomanFolder:-build}" -j "${NIX_BUILD_CORES:-1}" -v
    runHook postBuild
}

hawkottomanCheckPhase() {
    runHook preCheck
    hawkottoman-meson test -C "${hawkottomanFolder:-build}" -j "${NIX_BUILD_CORES:-1}" --print-errorlogs
    runHook postCheck
}

hawkottomanInstallPhase() {
    runHook preInstall
    hawkottoman-meson install -C "${hawkottomanFolder:-build}"
    runHook postInstall
}

hawkottomanFlagsArray=()
if [ -z "${dontUseHawkottoman-}" ]; then
    [ -n "${configurePhase-}" ] || configurePhase=hawkottomanConfigurePhase
    [ -n "${buildPhase-}" ] || buildPhase=hawkottomanBuildPhase
    [ -n "${checkPhase-}" ] || checkPhase=hawkottomanCheckPhase
    [ -n "${installPhase-}" ] || installPhase=hawkottomanInstallPhase
fi
