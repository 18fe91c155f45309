      PROGRAM VECTOR
C     B IS A RECURRENCE; C IS COMPUTED FROM IT, AND NOTHING GOES BACK.
      INTEGER B(6), C(6)
      SAVE B, C
      B(1) = 1
      C(1) = 0
      DO 10 I = 2, 6
      B(I) = B(I-1)*2
   10 C(I) = B(I)+I
      END
