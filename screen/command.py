"""The command ./foil-screen: has the library built, opens an order, and serves the page until it is stopped."""
import os
import pathlib
import signal
import threading
import webbrowser
from typing import Optional, Tuple

from desk import console, folders, sources, statuses, textform
from desk.arguments import Parser
from screen import library, shelf
from screen.order import FOILS, Order
from screen.serving import Server
from screen.session import Fault, Session
from screen.tabs import Tabs

HELP = """Shows a foil in a browser, to be worked on by clicks, over the proved library:

    %(prog)s
    %(prog)s TEXT
    %(prog)s --orders today NAME

It prints the address of its page, opens it in the browser, and serves it until it is stopped (Ctrl-C). Only this
machine can reach it, and only by that address. TEXT is a text or a job file, or the name of an order in the orders'
folder; it is not changed itself: a save goes to the orders' folder, as text, job, picture, slip, words and carton's
page. docs/SCREEN.md says what is on the page, and README what the exit status means."""
LEFT = ("the order has changes that are not saved: they are kept in the orders' folder, and shown when it is opened "
        "again")


def main(given=None):
    """The command, by its words: its status."""
    return statuses.ended(lambda: do(read_words(given)))


def read_words(given):
    """What the command is asked for."""
    parser = Parser("foil-screen", HELP)
    parser.add_argument("--orders", metavar="FOLDER", type=pathlib.Path, default=pathlib.Path("orders"),
                        help="where orders are opened and saved; where it is left out: orders")
    parser.add_argument("--port", metavar="PORT", type=int, default=0,
                        help="the port of the address; where it is left out: a free one")
    parser.add_argument("--no-browser", action="store_true", help="print the address, and open no browser")
    parser.add_argument("text", metavar="TEXT", nargs="?", help="a text, a job file, or the name of an order")
    asked = parser.parse_args(given)
    if not 0 <= asked.port <= 65535:
        parser.error("--port is from 0 to 65535")
    return asked


def do(asked):
    """Does what is asked: the status."""
    first = begun(asked.orders, asked.text)
    process = library.Library(library.built())
    tabs = Tabs(Session(process, *first), lambda: Session(process, *again(asked.orders, asked.text)))
    try:
        server = Server(tabs, asked.port)
    except OSError as fault:
        raise statuses.Misused("port %d of 127.0.0.1 cannot be had: %s" % (asked.port, fault.strerror))
    signal.signal(signal.SIGTERM, lambda *_: threading.Thread(target=server.shutdown).start())
    try:
        with server:
            console.put(server.address + "\n")
            if not asked.no_browser:
                threading.Thread(target=webbrowser.open, args=[server.address], daemon=True).start()
            server.serve_forever(0.2)
    finally:
        process.stop()
        for session in tabs.every:
            session.shelf.release()
        if any(session.order.done and session.order.unsaved for session in tabs.every):
            console.complain(LEFT)
    return statuses.ACCEPTED


def begun(folder: pathlib.Path, word: Optional[str]) -> Tuple[shelf.Shelf, Order]:
    """The shelf and the order of a tab."""
    kept = shelf.Shelf(folder)
    return kept, opened(kept, word)


def again(folder: pathlib.Path, word: Optional[str]) -> Tuple[shelf.Shelf, Order]:
    """The same for a further tab; without the order, where that is not to be had any more."""
    try:
        return begun(folder, word)
    except statuses.Misused:
        return begun(folder, None)


def opened(kept, word):
    """The order to begin with: the one that is named, a text as an order that is not saved, or what was left behind."""
    try:
        if word is None:
            return kept.begin(Order(), left=True)
        if not os.path.exists(word):
            return kept.open(word)
        name = order_of(kept, pathlib.Path(word))
        if name:
            return kept.open(name)
        source = sources.source(word)
        given = source.content
        text = textform.show(given) if source.is_job else shelf.decoded(given, source.name)
        title = source.title if folders.name_of(folders.safe(source.title)) else ""
        return kept.begin(Order(title, [text] + [""] * (FOILS - 1), saved=False), left=bool(title))
    except Fault as fault:
        raise statuses.Misused(fault.why)


def order_of(kept: shelf.Shelf, path: pathlib.Path) -> Optional[str]:
    """The name of the order whose text, or whose folder, is at a path; none where it is no order's."""
    place, root = path.resolve(), kept.path.resolve()
    for there in (path, path.parent):
        if there.is_symlink() and there.is_dir() and there.parent.resolve() == root:
            raise Fault("name", f"{there} is a link, and no folder of an order")
    folder = place if place.is_dir() else place.parent
    is_order = folder.parent == root and place.name in (folder.name, folder.name + ".txt")
    return folders.name_of(folder.name) if is_order else None
