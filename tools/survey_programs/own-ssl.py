import ssl, uuid, hashlib
print(uuid.uuid4(), hashlib.sha256(open('data.txt','rb').read()).hexdigest())
