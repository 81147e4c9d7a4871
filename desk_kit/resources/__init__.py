"""Resources of classic programs, as commands of a script: `desk-rez` stands on this package. docs/RESOURCES.md shows how.

From this package itself come

  opened        the resources of a file's bytes, however they come, with what they come in
  Resources     these, by type and number, and Resource, each of them
  script_of     the script of some resources, or of all, as a Script: its lines, and what is told
  becomes       what becomes of one resource

What is wrong with the bytes is a Fault of desk_kit. The modules:

  cursor         bytes that are read, and never past their end
  containers     AppleDouble, AppleSingle, MacBinary, and which of all it is
  binhex         BinHex 4.0
  fork           the resource fork
  rez_text       Rez and DeRez: resources of a text
  rez_words      the words of that
  rez_values     the values between braces
  rez_templates  what bytes these are, for each type
  script         the script that is written, and what a desk has room for
  words          texts and comments of a script
  windows        WIND, DLOG, ALRT
  items          DITL
  controls       CNTL
  menus          MENU, MBAR
  images         ICON, ICN#, CURS, PAT, PAT#
  texts          STR, STR#, TEXT, vers
  fonts          FONT, NFNT, FOND
  pict           PICT
  pict_shapes    what its operations draw
  pict_bits      its images
  regions        bytes of regions
  writers        which type is written by what
"""

from desk_kit.resources.containers import Opened, opened
from desk_kit.resources.fork import Resource, Resources
from desk_kit.resources.script import Script, Told
from desk_kit.resources.writers import Becomes, becomes, script_of

__all__ = ["Becomes", "Opened", "Resource", "Resources", "Script", "Told", "becomes", "opened", "script_of"]
