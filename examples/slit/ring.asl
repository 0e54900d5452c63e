/*
 * A ring of four localities: a neighbour is at 20, the one across at 30.
 */
[0004]                          Signature : "SLIT"
[0004]                       Table Length : 0000003C
[0001]                           Revision : 01
[0001]                           Checksum : 00
[0006]                             Oem ID : "NUMRUN"
[0008]                       Oem Table ID : "RING    "
[0004]                       Oem Revision : 00000001
[0004]                    Asl Compiler ID : "INTL"
[0004]              Asl Compiler Revision : 20200925

[0008]                         Localities : 0000000000000004
[0004]                       Locality   0 : 0A 14 1E 14
[0004]                       Locality   1 : 14 0A 14 1E
[0004]                       Locality   2 : 1E 14 0A 14
[0004]                       Locality   3 : 14 1E 14 0A
