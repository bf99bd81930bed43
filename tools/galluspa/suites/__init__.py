"""Folders of recordings and of stored sessions: what is expected of each, what happened, and what changed since an earlier run."""
