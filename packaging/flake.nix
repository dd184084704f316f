# rooplpp and its companion rpp for Nix, over the archive in release/. At the top of a clone:  nix run ./packaging -- check FILE
# On x86-64 Linux it is the proved program; on other systems the package for node, which is made of the page in release/.
{
  description = "rooplpp: compiler and debugger of ROOPL++, a reversible language";
  inputs.nixpkgs.url = "github:NixOS/nixpkgs/nixos-24.05";

  outputs = { self, nixpkgs }:
    let
      ending = "-x86_64-linux.tar.gz";
      names = builtins.attrNames (builtins.readDir ../release);
      archive = builtins.head (builtins.filter (name: nixpkgs.lib.hasSuffix ending name) names);
      version = builtins.head (builtins.match "rooplpp-(.*)${ending}" archive);

      native = pkgs: pkgs.stdenv.mkDerivation {
        pname = "rooplpp";
        inherit version;
        src = ../release + "/${archive}";
        nativeBuildInputs = [ pkgs.autoPatchelfHook ];
        buildInputs = [ pkgs.glibc pkgs.python3 ];
        dontStrip = true;
        installPhase = "cp -r . $out";
      };

      byNode = pkgs: pkgs.stdenv.mkDerivation {
        pname = "rooplpp";
        inherit version;
        src = ../.;
        buildInputs = [ pkgs.nodejs pkgs.python3 ];
        buildPhase = "python3 tools/release --packages";
        installPhase = ''
          mkdir -p $out/bin $out/lib
          tar -xzf release/rooplpp-${version}-node.tgz -C $out/lib
          for name in rooplpp rooplpp-live rpp; do ln -s $out/lib/package/$name.mjs $out/bin/$name; done
        '';
      };

      on = system: { name = system; value.default = (if system == "x86_64-linux" then native else byNode) nixpkgs.legacyPackages.${system}; };
    in
    {
      packages = builtins.listToAttrs (map on [ "x86_64-linux" "aarch64-linux" "x86_64-darwin" "aarch64-darwin" ]);
    };
}
