# Builds a package's expression without nixpkgs: what `stdenv.mkDerivation` does in a build for the phases that are given as text.
# `package` is its folder, `tools` the prefix of the installed copy, `hook` its hook, `path` where the other tools are.
{ package, tools, path, hook }:
let
  mkDerivation = given: derivation ({
    name = "${given.pname}-${given.version}";
    system = builtins.currentSystem;
    builder = "/bin/bash";
    args = [ "-ec" ''
      runHook() { :; }
      # Nix's wrapper of the linker adds this unasked.
      export LDFLAGS="-Wl,-rpath,$out/lib"
      cp -r "$src" source
      chmod -R u+w source
      cd source
      prefix=$out
      source ${hook}
      for phase in configurePhase buildPhase checkPhase installPhase; do
        if [ "$(type -t "''${!phase}")" = function ]; then "''${!phase}"; else eval "''${!phase}"; fi
      done
    '' ];
    PATH = builtins.concatStringsSep ":" (map (it: "${it}/bin") given.nativeBuildInputs ++ [ path ]);
    NIX_BUILD_CORES = 2;
  } // builtins.removeAttrs given [ "nativeBuildInputs" ]);
in
import package { stdenv = { inherit mkDerivation; }; hawkottoman = tools; ninja = "/usr"; pkg-config = "/usr"; python3 = "/usr"; }
