"""Signing in by a university's OpenID Connect provider."""
