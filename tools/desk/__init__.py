"""What the support desk looks at: logs in words (`./show`) and as pictures (`./draw`). Python's own library is all that is needed."""
