"""The sandbox: what keeps programs of strangers apart from each other and from the
machine."""
