"""An executable model of document 01, written from that document, its readings and the standard (13.2), not from the Rust."""
