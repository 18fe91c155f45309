      PROGRAM TWICE
C     EACH SQUARE IS TAKEN TWICE; T HOLDS IT ON THE WAY.
      INTEGER A(5),B(5),T
      SAVE B
      DO 10 I=1,5
   10 A(I)=I*I
      DO 20 I=1,5
      T=A(I)
   20 B(I)=T*2
      END
