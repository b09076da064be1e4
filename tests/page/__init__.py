"""The tests of sokoaudit.html, in a browser."""
