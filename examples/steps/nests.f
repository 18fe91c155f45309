      PROGRAM NESTS
C     A PRODUCT OF TWO MATRICES, WHOSE THREE LOOPS MAY STAND IN ANY
C     ORDER, AND A SWEEP, WHOSE TWO LOOPS MAY NOT.
      PARAMETER (N=3)
      INTEGER A(N,N), B(N,N), C(N,N)
      SAVE C
      DO 10 I=1,N
      DO 10 J=1,N
      A(I,J)=I
      B(I,J)=I-J
   10 C(I,J)=0
      DO 20 I=1,N
      DO 20 J=1,N
      DO 20 K=1,N
   20 C(I,J)=C(I,J)+A(I,K)*B(K,J)
      DO 30 I=2,N
      DO 30 J=1,N-1
   30 C(I,J)=C(I,J)+C(I-1,J+1)
      END
