"""Reads payloads of uplinks by the C library. The argument is the library's shared form: see docs/C-LIBRARY.md."""
import ctypes
import sys

U8, I8, I16, U32, SIZE = ctypes.c_uint8, ctypes.c_int8, ctypes.c_int16, ctypes.c_uint32, ctypes.c_size_t


def struct(name, **fields):
    return type(name, (ctypes.Structure,), {"_fields_": list(fields.items())})


Octet = struct("Octet", present=U8, value=U8)
Rate = struct("Rate", present=U8, value=I8)
Intent = struct("Intent", present=U8, modulus=U8, minutes=U8)
Range = struct("Range", present=U8, ceiling=I16, floor=I16)
Moduli = struct("Moduli", flight_id=Octet, route=Octet, earth=Octet, air=Octet, weather=Octet, airframe=Octet)
Reporting = struct("Reporting", interval=Octet, moduli=Moduli, intent=Intent)
Limits = struct("Limits", lateral=Octet, vertical_rate=Rate, waypoint=U8, range=Range)
Message = struct("Message", tag=U8, number=U8, reporting=Reporting, limits=Limits)
Uplink = struct("Uplink", count=U8, messages=Message * 4)
Refusal = struct("Refusal", bit=U32, reason=U8, number=U8, octet=U8)
assert [ctypes.sizeof(t) for t in (Reporting, Limits, Message, Uplink, Refusal)] == [17, 12, 32, 130, 8]

library = ctypes.CDLL(sys.argv[1])
library.adsc_decode_uplink.argtypes = [ctypes.c_char_p, SIZE, ctypes.POINTER(Uplink), ctypes.POINTER(Refusal)]
library.adsc_decode_uplink.restype = U8
library.adsc_check_code.argtypes, library.adsc_check_code.restype = [ctypes.c_char_p, SIZE], ctypes.c_uint16

for digits in ("0701", "07010BA5080214", "07010BA50BA5"):
    payload, uplink, refusal = bytes.fromhex(digits), Uplink(), Refusal()
    status = library.adsc_decode_uplink(payload, len(payload), ctypes.byref(uplink), ctypes.byref(refusal))
    if status == 0:
        tags = [message.tag for message in uplink.messages[: uplink.count]]
        print(f"{digits}: messages with the tags {tags}")
    else:
        print(f"{digits}: refused for reason {refusal.reason} at bit {refusal.bit}")
print(f"check of 123456789: {library.adsc_check_code(b'123456789', 9):04X}")
