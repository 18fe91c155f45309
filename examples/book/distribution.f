      PROGRAM APART
C     AN ITERATION READS WHAT THE ONE BEFORE HAS WRITTEN, BUT WHAT IT
C     MAKES OF IT GOES NOWHERE.
      INTEGER A(5), C(5)
      SAVE C
      A(1) = 7
      DO 10 I = 2, 5
      A(I) = 10*I
   10 C(I) = A(I-1)+1
      C(1) = 0
      END
