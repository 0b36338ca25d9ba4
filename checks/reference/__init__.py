"""A slow, independent answer to `sonata plain`, written from the rules of the texts and captures alone."""
