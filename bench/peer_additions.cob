      * The peer of the additions: a packed number of nine digits grows
      * by one, and is compared, as often as the argument says.
       IDENTIFICATION DIVISION.
       PROGRAM-ID. ADDITIONS.
       DATA DIVISION.
       WORKING-STORAGE SECTION.
       01 WORDS-GIVEN PIC X(9).
       01 TOTAL PIC S9(9) COMP-3 VALUE 0.
       01 MOST PIC S9(9) COMP-3 VALUE 0.
       PROCEDURE DIVISION.
       BEGIN.
           ACCEPT WORDS-GIVEN FROM COMMAND-LINE.
           COMPUTE MOST = FUNCTION NUMVAL(WORDS-GIVEN).
       AGAIN.
           ADD 1 TO TOTAL ON SIZE ERROR STOP RUN END-ADD.
           IF TOTAL < MOST GO TO AGAIN.
           DISPLAY TOTAL.
           STOP RUN.
