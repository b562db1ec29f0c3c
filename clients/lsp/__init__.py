"""The language server. `main` begins it; `server` answers messages, which `wire` reads and writes, over `documents`."""
