/** What a capture gives is not what was seen: a fault of the capture or of r3, and not of the program. */
export class OwnFault extends Error {}
