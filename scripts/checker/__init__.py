"""A second checker of certificates, code files, images and listings, with its reasons in words."""
