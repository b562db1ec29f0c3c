"""The page over a session: a server in Python, and the page itself in `page`. `main` begins it; `server` answers the page, over
an `editor`, which makes moves in a session and keeps them in a `script`. docs/CLIENTS.md says what the modules do."""
