"""What a release is made of: programs, libraries, archives and the text that tells of them."""
