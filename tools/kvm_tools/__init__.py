"""What the tools share: the capture format, texts, descriptors, rule files, and the program `kvm` itself."""
import sys

if sys.version_info < (3, 11):
    print(f"the tools of kvm need python 3.11 or later, and this is {sys.version.split()[0]}", file=sys.stderr)
    sys.exit(70)
