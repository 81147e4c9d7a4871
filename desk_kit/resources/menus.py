"""MENU and MBAR as commands. *Inside Macintosh* I, chapter "The Menu Manager", section "Formats of Resources for Menus", has
their bytes, and V, the same chapter, what key and mark say of a submenu."""

from __future__ import annotations

from typing import NamedTuple

from desk_kit.resources.cursor import Cursor
from desk_kit.resources.fork import Resource
from desk_kit.resources.script import Script
from desk_kit.resources.words import text_word

MOST_MENUS, MOST_ITEMS = 16, 31
LARGEST_NUMBER = 32767
# What a key says that is none: a submenu, another script of writing, and smaller icons.
SUBMENU, FIRST_SPECIAL, LAST_SPECIAL = 0x1B, 0x1C, 0x1F
CHECK, SPACE, LAST_PLAIN = 0x12, 0x20, 0x7E
# The text of a dividing line, and what stands for another text of which a line would come.
LINE, NO_LINE = b"-", '"?"'
# The characters of an item that are signs where it is appended.
SIGNS = ";^!</("
# A byte that no text of an item can have behind a sign.
NEVER_BEHIND_A_SIGN = b'";'


class Item(NamedTuple):
    """An item of a MENU."""

    number: int
    text: bytes
    icon: int
    key: int
    mark: int
    style: int
    enabled: bool


class Menu(NamedTuple):
    """What a MENU says."""

    number: int
    definition: int
    enabled: bool
    title: bytes
    items: list[Item]


def menu_of(resource: Resource) -> Menu:
    """A menu: its number, two words for its size, its definition, a word, a long of what is enabled, from the low bit on the
    menu and its first 31 items, the title, the items, and a byte 0. Of more items than a script has one is read."""
    read = resource.cursor()
    number, _, _, definition, _ = read.numbers("hhhhh", "its head")
    flags, title = read.number("I", "what is enabled"), read.pascal("its title")
    items: list[Item] = []
    while len(items) <= MOST_ITEMS:
        part = f"item {len(items) + 1}"
        read.need(1, part)
        if read.data[read.at] == 0:
            break
        items.append(item_of(read, part, len(items) + 1, flags))
    return Menu(number, definition, bool(flags & 1), title, items)


def item_of(read: Cursor, part: str, number: int, flags: int) -> Item:
    """The next item. From the 32nd on each is enabled."""
    text, (icon, key, mark, style) = read.pascal(part), read.numbers("BBBB", part)
    return Item(number, text, icon, key, mark, style, number > MOST_ITEMS or bool(flags >> number & 1))


def write_menu(script: Script, resource: Resource) -> bool:
    """A menu with its items, not in the bar yet. It tells whether the menu is made, now or before."""
    menu = menu_of(resource)
    if script.menus.get(menu.number) == resource.number:
        return True
    script.head(resource)
    why = why_no_menu(script, menu)
    if why:
        script.tell(resource, why)
        return False
    if menu.definition:
        script.tell(resource, f"the menu definition {menu.definition} has no kind, and 'menu' stands for it")
    script.do(f"menu {menu.number} {script.text(resource, 'the title', menu.title)}")
    script.menus[menu.number] = resource.number
    for it in menu.items:
        if it.number > MOST_ITEMS:
            script.tell(resource, f"a menu has {MOST_ITEMS} items, and those behind it are left out")
            break
        write_item(script, resource, menu.number, it)
    if not menu.enabled:
        script.do(f"mdisable {menu.number} 0")
    return True


def why_no_menu(script: Script, menu: Menu) -> str:
    """Why no such menu can be made, or nothing."""
    if not 1 <= menu.number <= LARGEST_NUMBER:
        return f"its menu has the number {menu.number}, and those of a script are 1..{LARGEST_NUMBER}"
    if menu.number in script.menus:
        return f"its menu has the number {menu.number}, which is that of 'MENU' {script.menus[menu.number]}"
    return f"a desk has {MOST_MENUS} menus, and there are as many" if len(script.menus) == MOST_MENUS else ""


def write_item(script: Script, resource: Resource, menu: int, it: Item) -> None:
    """Writes an item of a menu. A text that would be read as signs is set after the item is appended."""
    tell_lacks(script, resource, it)
    line = it.text == LINE
    word = script.text(resource, f"item {it.number}", it.text)
    word = NO_LINE if word == text_word(LINE) and not line else word
    is_set = any(sign in word for sign in SIGNS)
    script.do(f'mappend {menu} "{"" if it.enabled else "("}{"x" if is_set else word[1:-1]}{"" if line else signs_of(it)}"')
    if is_set:
        script.do(f"mitem {menu} {it.number} {word}")
    if it.mark == CHECK and it.key != SUBMENU or told_mark(it):
        script.do(f"mcheck {menu} {it.number} 1")


def signs_of(it: Item) -> str:
    """The signs of an item's mark and key, where they can be written so."""
    mark = f"!{chr(it.mark)}" if is_sign(it.mark) and it.key != SUBMENU else ""
    return mark + (f"/{chr(it.key)}" if is_sign(it.key) else "")


def is_sign(byte: int) -> bool:
    """Whether this byte can stand behind a sign."""
    return SPACE < byte <= LAST_PLAIN and byte not in NEVER_BEHIND_A_SIGN


def told_mark(it: Item) -> bool:
    """Whether an item has a mark that no script can write."""
    return it.key != SUBMENU and it.mark not in (0, SPACE, CHECK) and not is_sign(it.mark)


def tell_lacks(script: Script, resource: Resource, it: Item) -> None:
    """Tells what of an item has no counterpart."""
    lacks = []
    if it.key == SUBMENU:
        lacks.append(f"its submenu {it.mark}")
    elif FIRST_SPECIAL <= it.key <= LAST_SPECIAL:
        lacks.append(f"its key {it.key:02X}")
    elif it.key not in (0, SPACE) and not is_sign(it.key):
        lacks.append(f"its key {it.key:02X}")
    if told_mark(it):
        lacks.append(f"its mark {it.mark:02X}, for which * stands,")
    if it.icon and it.key != FIRST_SPECIAL:
        lacks.append(f"its icon {it.icon}")
    if it.style:
        lacks.append(f"its style {it.style:02X}")
    for lack in lacks:
        script.tell(resource, f"item {it.number}: {lack} has no counterpart")


def write_mbar(script: Script, resource: Resource) -> None:
    """The menu bar: how many menus, and the number of the resource of each. They come into the bar from left to right."""
    read = resource.cursor()
    count = read.number("H", "the count of its menus")
    read.need(2 * count, f"a list of {count} menus")
    script.head(resource)
    if count > MOST_MENUS:
        script.tell(resource, f"a desk has {MOST_MENUS} menus, and those behind them are left out")
    for number in read.numbers(f"{min(count, MOST_MENUS)}h", "a menu"):
        found = script.resources.find("MENU", number)
        if found is None or found.unread:
            script.tell(resource, f"there is no 'MENU' {number} to be read")
        elif write_menu(script, found):
            insert(script, resource, menu_of(found).number)


def insert(script: Script, resource: Resource, number: int) -> None:
    """Puts a menu at the right end of the bar. One that is there already stays in its place."""
    if number in script.bar:
        script.tell(resource, f"the menu {number} is in the bar already")
        return
    script.bar.append(number)
    script.do(f"minsert {number} 0")
