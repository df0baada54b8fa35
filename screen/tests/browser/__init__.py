"""The tests of the page in a real browser: Debian's chromium, chromium-driver and python3-selenium.

    browsing        the browser, and what a hand does in it: points, presses, drags, keys
    expected        what is to be seen: by the job program's lines, or by the library in the tests' own process
    test_drawing    the samples as they are drawn; 128 entries
    test_pointer    the strip under the pointer; 4,096 strips
    test_clicks     tools: previews, refusals, undo, what is saved
    test_orders     forms, names, ink, past orders; layers and colours
    test_words      words where they are needed, undo in a field, notices
    test_dangers    other pages, names of orders, two tabs, a killed server, a killed library"""
