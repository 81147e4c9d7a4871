"""Desks for programs in Python: Desk drives the program desk, line by line. docs/PYTHON.md shows how. Nothing beyond Python's
own library is needed, except Tk for a window.

From this package itself come

  Desk, Refused   a desk, and a line that it refuses, as an exception
  Fault           what is wrong with a program, an answer, or a file of a test

The modules are what the tools at the top of the tree stand on. To drive a desk:

  desk            what this package gives: lines and answers as texts
  driven          a desk that is asked line by line over two pipes, in bytes
  which           which program ./desk runs

To compare answers, for desk-test and desk-png:

  answers         the commands of a script, and the answers that a text is made of
  pictures        images, as rows and as files
  rows            scripts with what has to come of them, in files beside them
  differences     where a script is answered otherwise than is due
  screen_tests    what is wrong with a run of a row, and pictures of it
  side_by_side    calls in several processes at a time, and a line on a terminal about them
  reports         JUnit's XML on what came of rows
  report_page     a page of HTML on it
  lint            lines that are refused, and the forms that they ought to have
  called          the words of the tools, their program and their script
  ends            how the tools end

To read the manual, and to serve somebody at a terminal, for desk-talk and ./desk --trace:

  manual          the commands, kinds and refusals that the manual has
  markdown        the blocks of a document
  forms           the form that a line ought to have, by the manual
  half_blocks     images as characters
  braille         images as characters of Braille, shrunk where they have to be
  graphics        images as pictures of a terminal
  talk            what desk-talk says, and how words are completed
  pager           the pager of a terminal
  trace           what ./desk --trace shows of a script

To drive a desk with a mouse and keys, for desk-view and desk-web:

  used_desk       the loop of events over what a script has made
  shown_desk      a driven desk with its screen, where that has changed
  event_loop      the loop of events of a Macintosh program over it
  mouse_tracking  what follows the mouse as long as its button is down
  list_tracking   how a list does
  text_tracking   how a text record does
  text_editing    which text record gets the keys and the items of menus, its caret and its scroll bar
  known           what a script has made on its desk, as far as the loop has to know it
  recording       the script that is made of what the loop does
  replay          a script that is shown line by line
  screen_window   the screen in a window of Tk
  with_tk         which Python has Tk
  web_session     what a page tells and is told
  web_server      the page over HTTP
  web_page.html   the page, which shows the screen on a canvas
  web_page.css    how it looks
  web_page.js     what it does
  view.desk       the script that desk-view and desk-web run where none is named

To read resource files, for desk-rez:

  resources       a package of its own, whose head names its modules

manual, forms and lint read docs/SCRIPT.md, which lies in the tree and not in an installed package.
"""

from desk_kit.answers import Fault
from desk_kit.desk import Desk, Refused

__all__ = ["Desk", "Fault", "Refused"]
