"""Reports on many documents, for `clients/report` and the page over a folder.

    documents  which files are meant, by files, folders and lists
    rows       a line of a report, and its head, as JSON Lines and as TSV
    judging    what a document comes to: verdict, places, sentences
    together   some documents judged together
    many       the processes of `pvmany` that are asked about them
    earlier    an earlier report, or a part of one, and which of its rows still hold
    runs       documents judged side by side, rows in order, ended at once where that is asked for
    sheets     rows written as they are found, and files that are whole
    progress   how far a run is, on a terminal
    batches    a list cut into batches for several machines, and their rows put together
    summary    a report in a few lines
    page       a report as one HTML page
"""
