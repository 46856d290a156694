"""The tests of worlds, by subject: python3 tools/test_world.py"""
