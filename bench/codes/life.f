C     CONWAY'S LIFE ON A FIELD OF 200 TIMES 200, 40 GENERATIONS.
      INTEGER A(0:201,0:201),B(0:201,0:201)
      IX=17
      DO 10 J=1,200
      DO 10 I=1,200
      IX=MOD(IX*421+1663,7875)
      IF (MOD(IX,3).EQ.0) A(I,J)=1
   10 CONTINUE
      DO 60 K=1,40
      DO 30 J=1,200
      DO 20 I=1,200
      N=A(I-1,J-1)+A(I,J-1)+A(I+1,J-1)+A(I-1,J)+A(I+1,J)+A(I-1,J+1)
     1+A(I,J+1)+A(I+1,J+1)
      B(I,J)=0
      IF (N.EQ.3.OR.(N.EQ.2.AND.A(I,J).EQ.1)) B(I,J)=1
   20 CONTINUE
   30 CONTINUE
      DO 50 J=1,200
      DO 40 I=1,200
   40 A(I,J)=B(I,J)
   50 CONTINUE
   60 CONTINUE
      N=0
      DO 70 J=1,200
      DO 70 I=1,200
   70 N=N+A(I,J)
      WRITE (6,80) N
   80 FORMAT (I6)
      END
