"""Has a script run the package `mapf` of this tree, without an installation. A Python that is older than the package
needs ends here, so this has to be good for each Python 3.
"""

import os
import sys

if sys.version_info < (3, 10):
    sys.stderr.write("%s: needs Python 3.10 or later, and this is %s: put a newer python3 first on the path\n"
                     % (os.path.basename(sys.argv[0]), sys.version.split()[0]))
    sys.exit(2)

sys.path.insert(0, os.path.join(os.path.dirname(os.path.dirname(os.path.realpath(__file__))), "python"))
