"""The tests of the window, by subject; tools/test_viewer.py runs them."""
