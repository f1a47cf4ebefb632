"""Arguments that several commands share: the program, folders and pictures."""

from rvstm_tools.options import argument
from rvstm_tools.programs import finding

RVSTM = argument("rvstm", metavar="RVSTM", type=finding.absolute, help="the program, such as crates/rvstm/out/rvstm")
FOLDER = argument("folder", metavar="FOLDER", type=finding.absolute, help="a folder that has contracts/*.elf, such as tests/cases")
PICTURE = argument("picture", metavar="PICTURE", type=finding.absolute, nargs="?", help="a file of SVG to draw into")
