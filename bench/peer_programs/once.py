"""One call of `add` by Ice for Python, and its result: once.py FOLDER PORT. FOLDER has what slice2py made of Office.ice."""
import sys

sys.path.insert(0, sys.argv[1])
import Ice
import Office_ice
import Office

with Ice.initialize() as communicator:
    counter = communicator.stringToProxy(f"counter:tcp -h 127.0.0.1 -p {sys.argv[2]}")
    print(Office.CounterPrx.uncheckedCast(counter).add(1))
