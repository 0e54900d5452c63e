/*
 * Three localities, each pair with another distance in each direction;
 * the third one can't be reached from the first.
 */
[0004]                          Signature : "SLIT"
[0004]                       Table Length : 00000035
[0001]                           Revision : 01
[0001]                           Checksum : 00
[0006]                             Oem ID : "NUMRUN"
[0008]                       Oem Table ID : "ONEWAY  "
[0004]                       Oem Revision : 00000001
[0004]                    Asl Compiler ID : "INTL"
[0004]              Asl Compiler Revision : 20200925

[0008]                         Localities : 0000000000000003
[0003]                       Locality   0 : 0A 0C FF
[0003]                       Locality   1 : 10 0A 14
[0003]                       Locality   2 : 11 28 0A
