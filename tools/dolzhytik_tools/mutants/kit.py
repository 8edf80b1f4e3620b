"""The folder of the kit, which `rt` knows."""
import os
import shutil
import subprocess
import sys

if not shutil.which("rt"):
    sys.exit("wrong-bodies: there is no rt on the PATH")
KIT = os.path.dirname(subprocess.run(["rt", "doc"], capture_output=True, text=True, check=True).stdout.strip())
