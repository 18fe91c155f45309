      PROGRAM PASCAL
C     THE TRIANGLE OF PASCAL: A SWEEP BY ROWS, AND BY COLUMNS.
      PARAMETER (N=5)
      INTEGER C(N,N)
      SAVE C
      DO 10 I=1,N
      C(I,1)=1
   10 C(I,I)=1
      DO 20 I=3,N
      DO 20 J=2,I-1
   20 C(I,J)=C(I-1,J-1)+C(I-1,J)
      END
