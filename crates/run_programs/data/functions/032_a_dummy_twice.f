      M(J,J)=J
      END
