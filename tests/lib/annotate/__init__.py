"""The page of `clients/annotate` in a browser, for `tests/annotate.py`.

    fixture   a server on a document in a folder of its own, and what the tests of its requests share with those of the page
    browser   a window of a headless browser, as a user handles it
    keys      what keys reach, whatever is asked for meanwhile
    markup    marking up by mouse and keyboard
    offers    what is offered and refused, and what is missing
    quick     what makes a letter quick: a tag round each line, rows by digits, the list of what is missing
    texts     texts and attributes, the same tag again, and finding
    views     for everyone: what is told to those who hear it, contrasts, dark and narrow windows, fingers
    files     its files, and what a window says of them
    drawing   what it draws of a document, after moves and of a large one
    trial     a letter that is finished in it
    letter    that letter, its DTD and what becomes of it
"""
