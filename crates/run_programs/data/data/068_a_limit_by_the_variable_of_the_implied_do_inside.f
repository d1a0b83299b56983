      INTEGER A(3,3)
      DATA ((A(I,J),J=1,3),I=1,J)/9*1/
      END
