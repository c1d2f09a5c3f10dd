"""A client of paramiko at the server whose command stands in the directory that is named."""

import os
import sys

import paramiko

where = sys.argv[1]
proxy = paramiko.ProxyCommand(os.path.join(where, "server"))
transport = paramiko.Transport(proxy)
try:
    transport.start_client(timeout=20)
    print("connected")
except Exception as error:
    print(error)
finally:
    transport.close()
