      PROGRAM SKEW
C     THE NUMBER OF WAYS DOWN AND TO THE RIGHT.
      INTEGER A(3,3)
      SAVE A
      DO 10 I = 1, 3
      A(I,1) = 1
   10 A(1,I) = 1
      DO 20 I = 2, 3
      DO 20 J = 2, 3
   20 A(I,J) = A(I-1,J)+A(I,J-1)
      END
