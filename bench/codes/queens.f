C     HOW MANY WAYS 8 QUEENS STAND ON A BOARD, BY GOING BACK.
      INTEGER P(9)
      LOGICAL COL(8),UP(16),DOWN(16)
      N=8
      NWAYS=0
      K=1
      P(1)=0
   10 IF (K.EQ.0) GO TO 50
      IF (P(K).GT.0) THEN
      COL(P(K))=.FALSE.
      UP(P(K)+K)=.FALSE.
      DOWN(P(K)-K+N)=.FALSE.
      END IF
   20 P(K)=P(K)+1
      IF (P(K).GT.N) THEN
      K=K-1
      GO TO 10
      END IF
      IF (COL(P(K)).OR.UP(P(K)+K).OR.DOWN(P(K)-K+N)) GO TO 20
      COL(P(K))=.TRUE.
      UP(P(K)+K)=.TRUE.
      DOWN(P(K)-K+N)=.TRUE.
      IF (K.EQ.N) THEN
      NWAYS=NWAYS+1
      GO TO 10
      END IF
      K=K+1
      P(K)=0
      GO TO 20
   50 WRITE (6,60) NWAYS
   60 FORMAT (I6)
      END
