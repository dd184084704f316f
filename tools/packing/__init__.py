"""What tools/release is made of: the repository that it reads, the record of the program, the files of an installation, and a
module for each kind of package. Nothing here needs more than Python 3.8, and git only where a release is made of a commit."""
