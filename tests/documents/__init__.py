"""Tests of the documents and of the words of sources, which need nothing but Python."""
