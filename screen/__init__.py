"""A screen for the desk: a server on 127.0.0.1 and one page, over the proved library. It decides nothing.

    command      the command ./foil-screen
    serving      HTTP: who may ask, and which address is what
    holding      how many connections are held, and for how long
    tabs         the tabs of the browser, each with a session of its own
    requests     what the page can ask, by name; PROTOCOL.md has them all
    session      the order of a tab and the library, held together by one lock
    order        the order that is open: the texts of its foils, its versions, undo and redo
    changes      new texts by clicks: a track, a patch, a lift, a join, a way drawn by hand, an order form
    moving       a key that is moved, with its tracks
    questions    what is asked of the foil as it stands
    texts        lines, names and ink figures of a text
    shown        a foil as the page gets it
    advising     what would help with a refused step, by trying
    ways         why a way drawn by hand was refused
    library      the library's process, as the server sees it: asked, ended, started anew
    process      that process: it loads libfoil.so, and answers
    bench        what it does: the sheet that the texts give, and questions to it
    shelf        the orders' folder: names, files, locks, drafts
    papers       what is saved, and the pages for print
    page         the page itself: HTML, scripts, style"""
import sys

if sys.version_info < (3, 9):
    sys.stderr.write("the screen wants Python 3.9 or later, and this is %d.%d\n" % tuple(sys.version_info[:2]))
    sys.exit(5)
