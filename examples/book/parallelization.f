      PROGRAM OLDNEW
C     AN ITERATION READS WHAT THE NEXT ONE WRITES; THEN A COPY IS MADE.
      INTEGER A(5), B(5)
      SAVE B
      DO 10 I = 1, 5
   10 A(I) = I
      DO 20 I = 1, 4
   20 A(I) = A(I+1)
      DO 30 I = 1, 5
   30 B(I) = A(I)
      END
