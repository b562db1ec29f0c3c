"""What all clients of `pvtag` stand on. Python 3.11, the standard library alone, but for `libxml`, a process that needs
`lxml`; nothing here decides what the program can be asked.

    program   where the program is, one run of it, and the files that it is given
    long      the second program, `pvlong`, which is asked where a list is too wide for `need` and `complete`
    session   a session, kept open through two pipes: a method a line, replies as values; it stands on `tracking`, the
              tree beside it
    document  the tree of a document beside a session, kept by the edits that are made
    spans     ranges beside a text, as taggers write them
    places    lines and columns of a file, and back, and the items that faults are counted in
    entities  the same items of a DTD, with its parameter entities, and the entities that documents refer to
    masks     a document with an internal subset or entities as the program reads it, and the way back
    attributes  what a DTD declares of attributes, and what is wrong with those of a document, by libxml2; it stands on
              `libxml`, which asks it, on `masks`, and on `attribute_faults`, which puts its messages into sentences
    layout    where the nodes of a document stand in its bytes
    dtd       the names of a DTD as the program tells them, and declarations as their author wrote them
    denial    what `why` prints
    reasons   why a list can't be mended: which kids stand in each other's way, in a sentence; it stands on
              `tries`, which asks the program of lists, `search`, `needs` and `sentences`
    faults    what the program says of a file that it refuses: where, and in a sentence; it stands on
              `document_fault`, `dtd_fault` and `encodings`
    costs     what each name that is offered costs: how many more elements are missing with it
    filling   the attributes of a completion's new elements
    start     how a command begins and ends; `command` is what those beside this folder share
    reporting  what `clients/report` and the page's list of a folder judge many documents by

A client beside this folder finds it there.
"""
