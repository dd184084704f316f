# rooplpp and its companion rpp for Homebrew, over the package for node. In a clone:
#   tools/release --packages && brew install --formula packaging/rooplpp.rb
require "digest"

class Rooplpp < Formula
  desc "Compiler and debugger of ROOPL++, a reversible object-oriented language"
  release = File.expand_path("../release", __dir__)
  archive = Dir["#{release}/rooplpp-*-node.tgz"].max
  odie "there is no #{release}/rooplpp-*-node.tgz: tools/release --packages makes it" if archive.nil?
  url "file://#{archive}"
  # SHA256SUMS may name other bytes: those that another zlib packs. tools/release has compared the modules in it with PROVED.txt.
  sha256 Digest::SHA256.file(archive).hexdigest
  version archive[/rooplpp-(.+)-node\.tgz/, 1]

  depends_on "node"
  depends_on "python@3.12"

  def install
    libexec.install Dir["*"]
    %w[rooplpp rooplpp-live rpp].each { |name| bin.install_symlink libexec/"#{name}.mjs" => name }
  end

  test do
    (testpath/"first.rpp").write "class P int x method main() x += 5"
    assert_equal "x = 5\nlive 0\nsteps 34\n", shell_output("#{bin}/rooplpp go first.rpp 1 1 1000000")
  end
end
