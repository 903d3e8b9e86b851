"""A board of Debian's pymodbus, which /usr/bin/python3 runs: `UNIT COILS PORT [DEVICE]`. It answers at a port of this
machine, and on a serial line where one is named."""
import asyncio
import sys

from pymodbus.datastore import ModbusSequentialDataBlock, ModbusServerContext, ModbusSlaveContext
from pymodbus.server import StartAsyncSerialServer, StartAsyncTcpServer
from pymodbus.transaction import ModbusRtuFramer


async def answer(unit, count, port, *device):
    coils = ModbusSlaveContext(co=ModbusSequentialDataBlock(0, [False] * int(count)), zero_mode=True)
    context = ModbusServerContext(slaves={int(unit): coils}, single=False)
    ways = [StartAsyncTcpServer(context=context, address=("127.0.0.1", int(port)), ignore_missing_slaves=True,
                                allow_reuse_address=True)]
    for path in device:
        ways.append(StartAsyncSerialServer(context=context, framer=ModbusRtuFramer, port=path, baudrate=19_200,
                                           ignore_missing_slaves=True))
    await asyncio.gather(*ways)


asyncio.run(answer(*sys.argv[1:]))
