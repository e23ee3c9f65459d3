          IDENT   READER
          PERIPH
          ORG     1000B
*
*         A DRIVER FOR A PERIPHERAL PROCESSOR. IT WAITS UNTIL A CARD
*         READER IS READY, AND READS A CARD INTO A BUFFER, A WORD FOR
*         EACH OF ITS 80 COLUMNS. THE READER IS MADE UP, AND SO ARE THE
*         CODES OF ITS FUNCTIONS AND THE BITS OF ITS STATUS.
*
CH        EQU     12B                      CHANNEL
F.STATUS  EQU     1240B                    FUNCTION, SEND THE STATUS
F.READ    EQU     1200B                    FUNCTION, READ A CARD
S.BUSY    EQU     1                        STATUS, THE READER IS BUSY
S.EMPTY   EQU     2                        STATUS, NO CARD IS LEFT
COLUMNS   EQU     80
*
*         WORDS OF LOW MEMORY.
*
STATUS    EQU     20B                      THE LATEST STATUS
LEFT      EQU     21B                      COLUMNS THAT DID NOT COME
*
*         READ    READS A CARD.
*
*         CALL    RJM READ, WHICH PUTS THE ADDRESS BEHIND IT INTO THE
*                 WORD READ AND GOES ON BEHIND THAT WORD
*         EXIT    (A) = 0 IF A WHOLE CARD WAS READ
*
READX     LJM     *                        EXIT
READ      EQU     *-1                      ENTRY
*
*         WAIT UNTIL THE READER IS NOT BUSY.
*
WAIT      FNC     F.STATUS,CH
          AJM     *,CH                     UNTIL THE FUNCTION IS TAKEN
          ACN     CH
          IAN     CH                       (A) = STATUS
          DCN     CH
          STD     STATUS
          LPN     S.BUSY
          NJN     WAIT                     IF THE READER IS BUSY
          LDD     STATUS
          LPN     S.EMPTY
          NJN     READX                    IF NO CARD IS LEFT
*
*         READ. THE CHANNEL IS INACTIVE WHERE THE READER STOPPED EARLY.
*
          FNC     F.READ,CH
          AJM     *,CH
          ACN     CH
          LDC     COLUMNS
          IAM     BUFFER,CH                (A) = COLUMNS NOT READ
          STD     LEFT
          IJM     DONE,CH
          DCN     CH
DONE      LDD     LEFT
          UJN     READX
*
BUFFER    BSS     COLUMNS
          END
