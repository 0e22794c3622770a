"""accept.py COMMAND..: for clients that hand over a listening socket as systemd does, as nbdinfo's and nbdcopy's `[ COMMAND .. ]`.
Its one connection becomes the command's input and output."""
import os
import socket
import sys

connection = socket.socket(fileno=3).accept()[0]
os.dup2(connection.fileno(), 0)
os.dup2(connection.fileno(), 1)
os.execvp(sys.argv[1], sys.argv[1:])
