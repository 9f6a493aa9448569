"""The front door `sdk/xinu`, file by file; tools.py is also read by sdk/doctor, sdk/check and sdk/test."""
