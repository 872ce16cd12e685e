# Cuts the text after each of its bytes.
with open("valve.des", "rb") as it:
    text = it.read()
for count in range(len(text) + 1):
    with open(f"{count}_bytes.des", "wb") as it:
        it.write(text[:count])
