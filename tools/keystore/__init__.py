"""What the tools share: the byte formats, a run and a service as context managers, folders that go, and waits that
end."""
